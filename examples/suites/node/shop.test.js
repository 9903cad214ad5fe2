import test from 'node:test';
import { snapshot } from 'snap-testing';
import * as shop from './shop.js';

test('order', (t) => snapshot(t, shop.order()));
test('greeting', (t) => snapshot(t, shop.greeting()));
test('receipt', (t) => snapshot(t, shop.receipt()));
test('opening', (t) => snapshot(t, shop.opening()));
test('prices', (t) => snapshot(t, shop.prices()));
test('delivery', (t) => {
  snapshot(t, shop.delivery(false));
  snapshot(t, shop.delivery(true));
});
test('stock', (t) => snapshot(t, shop.stock()));
test('basket', (t) => snapshot(t, shop.basket()));
test('picture', (t) => snapshot(t, shop.picture()));
test('sales', (t) => snapshot(t, shop.sales()));
test('parcel', (t) => snapshot(t, shop.parcel()));
