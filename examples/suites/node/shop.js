// A lamp shop: what its tests look at.

/** Nested: maps in lists in maps. */
export const order = () => ({
  id: 7341,
  customer: { name: 'Ada', address: { street: 'Hill Road', number: 12 } },
  lines: [{ article: 'lamp', pieces: 2 }, { article: 'bulb', pieces: 5 }],
});

export const greeting = () => 'Grüße aus 東京 💡 👩‍🚀';

export const receipt = () => ({ text: '2 lamps   19.80\n5 bulbs   12.50\nthank you\n' });

export const opening = () => ({ since: new Date('2019-02-28'), next: new Date('2026-11-30T09:30:00Z') });

export const prices = () => ({ lamp: 9.9, lot: 3.0, sum: 0.1 + 0.2, least: 5e-324, unknown: NaN, most: Infinity });

export const delivery = (sent) => (sent ? { day: new Date('2026-12-01'), parcels: 1 } : null);

export const stock = () => ({ lamps: 2n ** 64n, debts: -(2n ** 100n), screws: 2n ** 128n - 1n });

export const basket = () => ({ lines: [], vouchers: {}, tags: new Set(), note: '' });

export const picture = () => Buffer.from('89504e470d0a1a0a00ff', 'hex');

/** Keys that are no texts. */
export const sales = () =>
  new Map([[7, 'lamps'], [null, 'returned'], [new Date('2026-11-30'), 'on that day'], [['lamp', 2], 'as a pair']]);

/** One list that stands twice. */
export function parcel() {
  const articles = ['lamp', 'bulb'];
  return { ordered: articles, sent: articles };
}
