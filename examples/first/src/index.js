import "./setup.js";
import "./pages/home.js";
import "./pages/about.js";
