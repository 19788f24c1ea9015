import { money } from "./lib/money.js";
import { table } from "./lib/table.js";

document.title = "Desk: " + table([80, 1250].map(money));
