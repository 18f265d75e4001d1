// What is sampled, in the part of the address after `#`: so a link gives the same sample again.

const LONGEST = 20000;

/** The settings that the address has, as an object of strings. */
export function readAddress() {
    return Object.fromEntries(new URLSearchParams(location.hash.slice(1)));
}

/** Puts settings into the address. A text that is too long for a link is left out, and the result is then false. */
export function writeAddress(settings) {
    const parameters = new URLSearchParams(settings);
    const fits = String(parameters).length <= LONGEST;
    if (!fits) parameters.delete("text");
    history.replaceState(null, "", `#${parameters}`);
    return fits;
}
