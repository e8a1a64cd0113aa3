// Which of the proved modules runs here: for all of the page it is decided in this place.
import { fileOf } from './carried.js';
import { has64Bits } from '../judge/modules.js';

/** The bytes of the module of this name, judge or solver. */
export const moduleOf = (name) => fileOf(`${name}${has64Bits() ? '64' : '32'}.wasm`);
