import "../shared/theme.js";
import "./about.js";
