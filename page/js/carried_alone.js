// What a single file carries along, in the place of carried.js: the scripts of its workers as texts, and the files of
// the proved modules in base64. page/make puts both into CARRIED.
const { workers, files } = CARRIED;

const addressOf = (name) => URL.createObjectURL(new Blob([workers[name]], { type: 'text/javascript' }));

/** The only addresses that a worker can have: of the texts above. */
const policy = globalThis.trustedTypes?.createPolicy('fairsplit-workers', { createScriptURL: addressOf });

/** Starts the worker of this name. */
export const startWorker = (name) => new Worker(policy ? policy.createScriptURL(name) : addressOf(name));

/** The bytes of a file in judge/. */
export const fileOf = async (name) => Uint8Array.from(atob(files[name]), (sign) => sign.charCodeAt(0));
