// Which currency a form begins with. The server knows none: the sign stands in the link. Pure.

const OF_REGIONS = {
  EUR: 'AD AT BE BG CY DE EE ES FI FR GR HR IE IT LT LU LV MC ME MT NL PT SI SK SM VA XK',
  USD: 'US PR EC SV', GBP: 'GB GG IM JE', CHF: 'CH LI', SEK: 'SE', NOK: 'NO', DKK: 'DK GL FO', PLN: 'PL', CZK: 'CZ',
  HUF: 'HU', RON: 'RO', ISK: 'IS', TRY: 'TR', UAH: 'UA', RSD: 'RS', CAD: 'CA', AUD: 'AU', NZD: 'NZ', INR: 'IN',
  JPY: 'JP', CNY: 'CN', KRW: 'KR', SGD: 'SG', HKD: 'HK', ILS: 'IL', ZAR: 'ZA', BRL: 'BR', MXN: 'MX', ARS: 'AR',
  CLP: 'CL', COP: 'CO',
};

/** The currencies that a form suggests; any other code can be typed. */
export const SUGGESTED = Object.keys(OF_REGIONS);

/** The currency of a locale's region; '' where the table has none. */
export function currencyOf(locale) {
  const { region } = new Intl.Locale(locale).maximize();
  return SUGGESTED.find((code) => OF_REGIONS[code].split(' ').includes(region)) ?? '';
}

/** The code that was typed; '' where there is none, null where it is none. */
export function codeOf(typed) {
  const code = typed.trim().toUpperCase();
  return code === '' || /^[A-Z]{3}$/.test(code) ? code : null;
}
