// When a round ends where nobody said otherwise. Pure.
const HOUR = 3_600_000;
const DAY = 24 * HOUR;

const evening = (ms) => new Date(ms).setHours(20, 0, 0, 0);

/** The times that a form offers: [word, moment]. A taxi comes soon. */
export const usualEnds = (kind, now) => (kind === 'fares'
  ? [['inAnHour', now + HOUR], ['inThreeHours', now + 3 * HOUR], ['tomorrow', evening(now + DAY)]]
  : [['tomorrow', evening(now + DAY)], ['inThreeDays', evening(now + 3 * DAY)], ['inAWeek', evening(now + 7 * DAY)]]);

/** The one that is picked at first. */
export const usualEnd = (kind, now) => (kind === 'fares' ? now + HOUR : evening(now + 7 * DAY));
