import { money } from "../lib/money.js";
import { table } from "../lib/table.js";

export const title = (cents) => "Checkout: " + table(cents.map(money));
