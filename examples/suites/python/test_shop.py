import shop


def test_order(snapshot):
    snapshot(shop.order())


def test_greeting(snapshot):
    snapshot(shop.greeting())


def test_receipt(snapshot):
    snapshot(shop.receipt())


def test_opening(snapshot):
    snapshot(shop.opening())


def test_prices(snapshot):
    snapshot(shop.prices())


def test_delivery(snapshot):
    snapshot(shop.delivery())
    snapshot(shop.delivery(sent=True))


def test_stock(snapshot):
    snapshot(shop.stock())


def test_basket(snapshot):
    snapshot(shop.basket())


def test_picture(snapshot):
    snapshot(shop.picture())


def test_sales(snapshot):
    snapshot(shop.sales())


def test_parcel(snapshot):
    snapshot(shop.parcel())
