"""A lamp shop: what its tests look at."""
from datetime import date, datetime, time, timezone


def order():
    """Nested: maps in lists in maps."""
    lines = [{"article": "lamp", "pieces": 2}, {"article": "bulb", "pieces": 5}]
    return {"id": 7341, "customer": {"name": "Ada", "address": {"street": "Hill Road", "number": 12}}, "lines": lines}


def greeting():
    return "Grüße aus 東京 💡 👩‍🚀"


def receipt():
    return {"text": "2 lamps   19.80\n5 bulbs   12.50\nthank you\n"}


def opening():
    return {"since": date(2019, 2, 28), "daily": time(9, 30), "next": datetime(2026, 11, 30, 9, 30, tzinfo=timezone.utc)}


def prices():
    return {"lamp": 9.9, "lot": 3.0, "sum": 0.1 + 0.2, "least": 5e-324, "unknown": float("nan"), "most": float("inf")}


def delivery(sent=False):
    return {"day": date(2026, 12, 1), "parcels": 1} if sent else None


def stock():
    return {"lamps": 2**64, "debts": -(2**100), "screws": 2**128 - 1}


def basket():
    return {"lines": [], "vouchers": {}, "tags": set(), "note": ""}


def picture():
    return b"\x89PNG\r\n\x1a\n\x00\xff"


def sales():
    """Keys that are no texts."""
    return {7: "lamps", None: "returned", date(2026, 11, 30): "on that day", ("lamp", 2): "as a pair"}


def parcel():
    """One list that stands twice."""
    articles = ["lamp", "bulb"]
    return {"ordered": articles, "sent": articles}
