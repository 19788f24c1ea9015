// Why a text can't be shown, as a sentence.
export class Unreadable extends Error {}
