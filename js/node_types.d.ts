// What these files use of node, for the check of types, which has no package of node's types.
declare module "node:fs" {
  const fs: any;
  export default fs;
}
declare module "node:tty" {
  const tty: { isatty(file: number): boolean };
  export default tty;
}
declare const process: {
  platform: string;
  versions: { node?: string };
  env: Record<string, string | undefined>;
  exitCode?: number;
  cwd(): string;
};
