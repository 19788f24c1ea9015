import { money } from "./lib/money.js";

document.title = "Shop: from " + money(80);
// The route is loaded when it is first gone to.
self.checkout = async (cents) => {
  const route = await import(/* webpackChunkName: "checkout" */ "./routes/checkout.js");
  document.title = route.title(cents);
};
