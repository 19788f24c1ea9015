import "../shared/base.js";
import "./home.js";
