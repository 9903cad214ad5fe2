package shop

import (
	"testing"

	"example.com/shop/internal/snap"
)

func TestOrder(t *testing.T)    { snap.Match(t, FirstOrder()) }
func TestGreeting(t *testing.T) { snap.Match(t, Greeting()) }
func TestReceipt(t *testing.T)  { snap.Match(t, Receipt()) }
func TestOpening(t *testing.T)  { snap.Match(t, Opening()) }
func TestPrices(t *testing.T)   { snap.Match(t, Prices()) }
func TestDelivery(t *testing.T) {
	snap.Match(t, Delivery(false))
	snap.Match(t, Delivery(true))
}
func TestStock(t *testing.T)   { snap.Match(t, Stock()) }
func TestBasket(t *testing.T)  { snap.Match(t, Basket()) }
func TestPicture(t *testing.T) { snap.Match(t, Picture()) }
func TestSales(t *testing.T)   { snap.Match(t, Sales()) }
func TestParcel(t *testing.T)  { snap.Match(t, Parcel()) }
