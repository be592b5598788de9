// The page as the server gives it.
import { open } from "./main.js";
import { ServerHost } from "./server_host.js";

open(new ServerHost());
