// The part of the page that is loaded when two builds are compared.
export { changeDetails } from './change_details.mjs';
export { ComparedPanel } from './compared_panel.mjs';
export { Loads } from './loads.mjs';
