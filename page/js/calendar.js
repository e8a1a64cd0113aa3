// The file that reminds somebody of a round: an appointment at its end (RFC 5545). Pure.

const escaped = (text) => text.replace(/[\\;,]/g, '\\$&').replace(/\n/g, '\\n');
const moment = (ms) => new Date(ms).toISOString().replace(/[-:]|\.\d+/g, '');

/** A line in pieces of at most 75 bytes, as the standard has it; no letter is cut. */
function folded(line) {
  const pieces = [''];
  let bytes = 0;
  for (const letter of line) {
    const size = new TextEncoder().encode(letter).length;
    if (bytes + size > 74) { pieces.push(''); bytes = 0; }
    pieces[pieces.length - 1] += letter;
    bytes += size;
  }
  return pieces.join('\r\n ');
}

/** The file of an appointment: `until` in milliseconds, `id` tells it from all others. */
export const calendarFile = ({ id, title, text, url, until, now }) => [
  'BEGIN:VCALENDAR', 'VERSION:2.0', 'PRODID:-//fairsplit//page//EN', 'BEGIN:VEVENT',
  `UID:${id}`, `DTSTAMP:${moment(now)}`, `DTSTART:${moment(until)}`, `DTEND:${moment(until + 900_000)}`,
  `SUMMARY:${escaped(title)}`, `DESCRIPTION:${escaped(text)}`, `URL:${url}`,
  'BEGIN:VALARM', 'ACTION:DISPLAY', `DESCRIPTION:${escaped(title)}`, 'TRIGGER:PT5M', 'END:VALARM',
  'END:VEVENT', 'END:VCALENDAR', '',
].map(folded).join('\r\n');
