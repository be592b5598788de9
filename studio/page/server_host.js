// Who answers the page where a server runs the program: `studio/run`. A host has what stands here; the pages
// without a server have others.

const SLOWEST = 10000; // milliseconds in which a server that is there answers

export class ServerHost {
  constructor() {
    this.name = "the studio's server";
    this.gone = "the studio's server is gone; start it again and open the address that it prints";
    this.lost = "the connection to the studio's server is lost";
  }

  // A socket to the session, for a page of this name.
  open(page) {
    const address = new URL("session", location.href);
    address.protocol = "ws:";
    address.searchParams.set("page", page);
    const socket = new WebSocket(address);
    socket.binaryType = "arraybuffer";
    return socket;
  }

  // Whether the page's address is answered by its own server. One that is slow is there.
  async isThere() {
    try {
      const { ok, status } = await fetch("icon.svg", { cache: "no-store", signal: AbortSignal.timeout(SLOWEST) });
      return ok || status >= 500;
    } catch (error) {
      return error.name === "TimeoutError";
    }
  }

  // A response to what is asked beside the session's orders.
  request(name, query, options) {
    const words = new URLSearchParams(query).toString();
    return fetch(words ? `${name}?${words}` : name, options);
  }
}
