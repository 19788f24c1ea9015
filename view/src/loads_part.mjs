// The part of the page that is loaded when loads or reasons are first asked for.
export { Loads } from './loads.mjs';
export { LoadsPanel } from './loads_panel.mjs';
export { groupDetails } from './group_details.mjs';
export { whySection } from './why_section.mjs';
