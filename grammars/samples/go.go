// A queue of jobs, and a few things beside it
package jobs // the package

import "fmt"
import (
	. "math"
	io `os`; str "strings"
)
import ()

const Limit, Most = 0x10, 0b1
const (
	Small float64 = 1.5e3 // a comment ends no line of its own
	Large
)

var first, last *Job
var (
	one    = 'a'
	two int = 2; three = .5i
)

type (
	Number interface {
		~int | ~float64 | int8
		fmt.Stringer; String() string
	}
	Links = map[string][]*Job
)
type empty struct{}
type Job struct {
	Name, Alias string `json:"name"`
	Next *Job
	fmt.Stringer; List[int]; empty
	*other; *io.List[int, string]
	other.List[int]
	run func(job *Job, more ...int) (ok bool, err error)
}
type List[T any, S fmt.Stringer, U ~[]int | T, W map[T]S | chan T, X List[T],] struct { items [2]T }
type none interface{}
type nested chan (<-chan int)

func (job *Job) Run(int, *Job, List[int], fmt.Stringer, io.List[int], []int, ...string) <-chan int

func Sum[K comparable, V Number](values map[K]V, each func(V, K,) V) (total V) {
	for _, value := range values {
		total += each(value)
	}
	return
}

func assembler(a, b int) [4]int
func unnamed((int))
func channels() (chan<- int, <-chan int, chan int) { return nil, nil, nil }
func make2() List[int] { return List[int]{} }

func (queue *List[T]) Push(item T) error {
	var array [Most]T; const c = 1
	array[0], array[1] = item, T(item)
	if len(array) > 0 && item != nil || !done {
		goto end
	} else if x := <-results; x <= -1 {
		defer close(results)
	} else {
		go func() { results <- +^1 &^ 3 | 4 ^ 5 }()
	}
	if ; x {
	}
outer:
	for i := 0; i < 10; i++ {
		switch {
		case i == 1, i == 2:
			continue outer
		case i > 3:
			break; fallthrough
		default:
		}
	}
	for ; ; {
		break outer
	}
	for {
	}
	for x < 1.5 {
	}
	for range results {
	}
	for a[0], a[1] = range []int{1, 2} {
	}
	switch x := any(item).(type) {
	case int, []string, *[]int, **struct{}, func(), *[2]func():
		x--
	}
	switch x, y := 1, 2; x + y { }
	switch ; { }
	switch results <- 1; *x {}
	select {
	case value, ok := <-results: use(value, ok)
	case results <- 1:
	}
	for x += 1; ; x = 2 {}
	bytes, maps := []byte("text"), map[string]*Job{"a": {Name: "b"}, `c`: nil,}
	part := bytes[1:] /* in a line */ ; rest := bytes[:2:3]
	value := []*fmt.List(nil); tables := [][]int(nil); named := map[string]int(nil)
	point := struct{ x, y int }{1, 2}; square := [...]int{1}; any := interface{}(1)
	sum := apply[int, string](values[1:2]...) + apply(values...,
	) * (1 + 2) / 3 & 4 - queue.items[0].(int)
	print(make([]int, 3), new(struct{}), &Job{},)
	func() {}()
	{
		;
	}
	ok := one == 'a' && two < 2 || three
	if f(a[0]).b.(int) == 1 && g[int](-*p) * 2 & 1 + 2 / 3 > 4 || &x == nil {}
end:
	return fmt.Errorf("%v\n", item)
again: return nil
last:
}

// Behind the name of a type: the length of an array, or type parameters
type (
	anyLength [...]int; slice []*Job; pointer *Job; same Job; ints List[int]; inside (*Job)
	most [Most]int; two2 [2 * 3]int; product [Most * 2 / 3]int; quotient [Most / 2]int; bit [Most & 1]int
	sum [Most + 1*2]int; test [Most == 1 && two < 2 || three]int; minus [-Most]int; value [*Most]int
	member [math.Most]int; size [len(name)]int; part [Job{}.size[1]]int; of [value.(int)]int
	all [unsafe.Sizeof(1)]int; least [io.Job{}.size.(int)]int
	listed[T []int, P *T, Q [2]T,] struct{}
	pointed[P *T,] struct{}; two3[P *T, Q any] struct{}; deep[P **[]int | T] struct{}
	some[T, S []int | P] struct{}; near[T ~[]int] struct{}; of2[T List[int]] struct{}; made[T interface{}] struct{}
)

func address[V any, P *V, L [2]V | []V](value V) P {
	to := (chan<- chan<- int)(nil); from := interface{ m1(string) }.m1; mixed := struct{ Job }.Run
	calls := map[[2]int][3]*Job(nil); lists := []List[int](nil); inner := [](Job)(nil); nothing := []struct{}(nil)
	one := chan int(to); other := chan<- int(to); third := <-chan int(to); fourth := func(int) error(nil)
	return &value
}
