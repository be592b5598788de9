#!/usr/bin/env node
// The command line of w4 on node: the same words, bytes and statuses as the program for Linux has. Nothing of node that is
// newer than what it says of itself here may stand in this file.
if (Number(process.versions.node.split(".")[0]) < 18) {
  console.error("w4-headless: this is node " + process.versions.node + ", and it needs node 18 or later");
  process.exitCode = 1;
} else {
  import("./command_line.js").then(({ main }) => main(process.argv.slice(2)));
}
