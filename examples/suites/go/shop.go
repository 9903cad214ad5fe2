// Package shop is a lamp shop: what its tests look at.
package shop

import (
	"math"
	"math/big"
	"time"
)

type Address struct {
	Street string
	Number int
}

type Customer struct {
	Name    string
	Address Address
}

type Line struct {
	Article string
	Pieces  int
}

// Order is nested: structs in lists in a struct.
type Order struct {
	ID       int
	Customer Customer
	Lines    []Line
}

func FirstOrder() Order {
	return Order{7341, Customer{"Ada", Address{"Hill Road", 12}}, []Line{{"lamp", 2}, {"bulb", 5}}}
}

func Greeting() string { return "Grüße aus 東京 💡 👩‍🚀" }

func Receipt() map[string]string {
	return map[string]string{"text": "2 lamps   19.80\n5 bulbs   12.50\nthank you\n"}
}

func Opening() map[string]any {
	return map[string]any{"next": time.Date(2026, 11, 30, 9, 30, 0, 0, time.UTC), "pause": 90 * time.Minute}
}

func Prices() map[string]float64 {
	third, tenth := 0.2, 0.1
	return map[string]float64{
		"lamp": 9.9, "lot": 3.0, "sum": tenth + third, "least": math.SmallestNonzeroFloat64,
		"unknown": math.NaN(), "most": math.Inf(1),
	}
}

type Parcels struct {
	Day   time.Time
	Count int
}

// Delivery is nil before it is sent.
func Delivery(sent bool) *Parcels {
	if !sent {
		return nil
	}
	return &Parcels{time.Date(2026, 12, 1, 0, 0, 0, 0, time.UTC), 1}
}

func Stock() map[string]*big.Int {
	power := func(bits uint) *big.Int { return new(big.Int).Lsh(big.NewInt(1), bits) }
	return map[string]*big.Int{
		"lamps": power(64), "debts": new(big.Int).Neg(power(100)), "screws": new(big.Int).Sub(power(128), big.NewInt(1)),
	}
}

func Basket() map[string]any {
	return map[string]any{"lines": []Line{}, "vouchers": map[string]int{}, "note": "", "tags": []string(nil)}
}

func Picture() []byte { return []byte("\x89PNG\r\n\x1a\n\x00\xff") }

// Sales has keys that are no texts.
func Sales() map[any]string {
	return map[any]string{
		7: "lamps", true: "returned", time.Date(2026, 11, 30, 0, 0, 0, 0, time.UTC): "on that day",
		[2]string{"lamp", "blue"}: "as a pair",
	}
}

// Parcel has one list that stands twice.
func Parcel() map[string][]string {
	articles := []string{"lamp", "bulb"}
	return map[string][]string{"ordered": articles, "sent": articles}
}
