// The pictures of the kinds: a flat, things of a house, a taxi, and people around a table.
import { svg } from './draw.js';

/** Of each picture its shapes, in order: a class of the style with a path, or with a circle as [x, y, radius]. */
const SHAPES = {
  rent: [['a1', 'M10 12h84v46H10z'], ['a2', 'M94 12h56v46H94z'], ['a3', 'M10 58h62v32H10z'],
    ['a0', 'M72 58h78v32H72z'],
    ['wall', 'M10 12h140v78H88M72 90H10V12M94 12v22M94 50v8M10 58h38M64 58h46M126 58h24M72 58v12M72 86v4'],
    ['arc', 'M48 58a16 16 0 0116-16v16M110 58a16 16 0 0016-16v16M72 90a16 16 0 0016-16v16'],
    ['glass', 'M34 12h26M110 12h24M10 68v14M150 68v14'],
    ['ln', 'M20 22h20v14H20zM20 26h20M136 22v16h-14V22zM136 26h-14M20 80h18v-10H20']],
  goods: [['floor', 'M8 90h144'], ['a2', 'M14 24c0-8 6-12 12-12s12 4 12 12v66H14z'], ['a0', [26, 28, 8]],
    ['ln', 'M14 24c0-8 6-12 12-12s12 4 12 12v66H14zM26 23v5l3 2M20 42h12v38H20zM26 42v24'], ['ln', [26, 28, 8]],
    ['ln', [26, 69, 3]],
    ['a1', 'M54 60V46c0-5 4-8 8-8h22c4 0 8 3 8 8v14M48 60c0-4 3-6 6-6s6 3 6 6v10h26V60c0-4 3-6 6-6s6 2 6 6v22H48z'],
    ['ln', 'M54 54v-8c0-5 4-8 8-8h22c4 0 8 3 8 8v8M48 60c0-4 3-6 6-6s6 3 6 6v10h26V60c0-4 3-6 6-6s6 2 6 6v22H48z'],
    ['ln', 'M54 82v8M92 82v8'], ['a3', 'M108 14h40v30h-40z'], ['a0', 'M112 18h32v22h-32z'],
    ['ln', 'M108 14h40v30h-40zM112 36c6-8 10-8 15-2s10-4 17-4M112 18h32v22h-32z'], ['ln', [137, 24, 2.5]],
    ['a2', 'M122 64h18l-3 26h-12z'],
    ['ln', 'M122 64h18l-3 26h-12zM131 64c0-8-6-10-10-10 0 6 4 10 10 10zm0 0c0-6 4-9 9-9 0 6-4 9-9 9z']],
  fares: [['r1', 'M14 18h38'], ['r2', 'M14 24h72'], ['r3', 'M14 30h126'],
    ['stop', [14, 24, 7]], ['stop', [56, 24, 7]], ['stop', [98, 28, 7]], ['stop', [144, 30, 7]],
    ['floor', 'M8 90h144'],
    ['a2', 'M34 82V70c0-3 2-5 6-6l12-2 12-12c2-2 4-3 7-3h26c3 0 6 1 8 3l10 12 8 2c5 1 7 4 7 8v10z'],
    ['a0', 'M68 51h16v11H58zM89 51h8c2 0 4 1 5 2l8 9H89z'],
    ['ln', 'M34 82V70c0-3 2-5 6-6l12-2 12-12c2-2 4-3 7-3h26c3 0 6 1 8 3l10 12 8 2c5 1 7 4 7 8v10'],
    ['ln', 'M34 82h10M64 82h34M118 82h12'],
    ['ln', 'M78 47v-5h12v5M84 51v11M58 62h52M70 69h6'], ['tyre', [54, 82, 8]], ['tyre', [108, 82, 8]]],
  here: [['a0', 'M34 62a46 22 0 1092 0a46 22 0 10-92 0'], ['ln', 'M34 62a46 22 0 1092 0a46 22 0 10-92 0'],
    ['a1', [34, 34, 13]], ['ln', [34, 34, 13]], ['a2', [126, 34, 13]], ['ln', [126, 34, 13]],
    ['a3', [80, 22, 13]], ['ln', [80, 22, 13]],
    ['card0', 'M68 49l16-4 7 27-16 4z'], ['ln', 'M73 53l9-2M75 59l6-1.500M76 65l9-2'],
    ['arc', 'M112 52c8 8 8 16 2 24M110 71l4 6 6-4']],
};

const shape = ([name, of]) => (typeof of === 'string' ? svg('path', { class: name, d: of })
  : svg('circle', { class: name, cx: of[0], cy: of[1], r: of[2] }));

/** The picture of a kind, or of `here`: everyone in one place. */
export const art = (kind) => svg('svg', { class: 'art', viewBox: '0 0 160 100', 'aria-hidden': 'true' },
  SHAPES[kind].map(shape));
