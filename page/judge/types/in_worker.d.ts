/**
 * The judges and solvers in a worker. `folder` is the URL of the folder with the modules, if they are not beside this file.
 * @param {string | URL} [folder]
 * @returns {Record<typeof NAMES[number], Call> & { end: () => void }}
 */
export function startWorker(folder?: string | URL | undefined): Record<"estate" | "check" | "checkWinner" | "checkEstate" | "rent" | "rentCents" | "goods" | "fares" | "faresCents" | "rentRooms" | "goodsOwners" | "faresRoute", Call> & {
    end: () => void;
};
/**
 * A call takes what the function of that name takes, and then perhaps a signal and, of `estate`, what is called with its progress.
 */
export type Call = (...words: any[]) => Promise<any>;
declare const NAMES: readonly ["check", "checkWinner", "rent", "rentCents", "goods", "fares", "faresCents", "rentRooms", "goodsOwners", "faresRoute", "estate", "checkEstate"];
export {};
