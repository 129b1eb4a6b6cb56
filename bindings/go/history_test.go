package scq

import (
	"bytes"
	"fmt"
	"os"
	"os/exec"
	"path/filepath"
	"sync"
	"sync/atomic"
	"testing"
)

// What is put: the seat that puts it, and the number of the put among those of the seat.
type named struct{ seat, number int }

// A seat of a recording: what one goroutine did, as `scq judge` reads it.
type seat struct {
	number int
	puts   int
	stamps *atomic.Int64
	lines  bytes.Buffer
}

func (s *seat) note(format string, words ...any) {
	fmt.Fprintf(&s.lines, "%d ", s.stamps.Add(1)-1)
	fmt.Fprintf(&s.lines, format+"\n", words...)
}

func (s *seat) put(call func(named) error) error {
	s.puts++
	s.note("start %d put 0 -", s.number)
	err := call(named{s.number, s.puts})
	if err == nil {
		s.note("end %d done", s.number)
	} else {
		s.note("end %d spent", s.number)
	}
	return err
}

func (s *seat) get(call func() (named, error)) error {
	s.note("start %d get 0", s.number)
	v, err := call()
	if err == nil {
		s.note("end %d got %d %d -", s.number, v.seat, v.number)
	} else {
		s.note("end %d nothing", s.number)
	}
	return err
}

// Goroutines that put and get, waiting or not, are recorded, and their recording is judged by the
// program that JUDGE of the environment names, which is `scq`.
func TestHistoriesAreJudged(t *testing.T) {
	judge := os.Getenv("JUDGE")
	if judge == "" {
		judge = "../../dist/x86_64-linux/scq"
	}
	if _, err := os.Stat(judge); err != nil {
		t.Skip("there is no judge")
	}
	for _, room := range []int{1, 4} {
		q := made[named](t, room)
		folder := t.TempDir()
		var stamps atomic.Int64
		var puts, gets sync.WaitGroup
		seats := make([]seat, 8)
		for k := range seats {
			s := &seats[k]
			s.number, s.stamps = k, &stamps
			if k < 4 {
				puts.Add(1)
				go func() {
					defer puts.Done()
					for n := 0; n < 2000; n++ {
						if n%3 == 0 {
							s.put(q.TryPut)
						} else {
							s.put(func(v named) error { return q.Put(background, v) })
						}
					}
				}()
			} else {
				gets.Add(1)
				go func() {
					defer gets.Done()
					for n, err := 0, error(nil); err != ErrClosed; n++ {
						if n%3 == 0 {
							err = s.get(q.TryGet)
						} else {
							err = s.get(func() (named, error) { return q.Get(background) })
						}
					}
				}()
			}
		}
		puts.Wait()
		q.Close()
		gets.Wait()
		words := []string{"judge", "--room", fmt.Sprint(room)}
		for k := range seats {
			file := filepath.Join(folder, fmt.Sprint(k, ".log"))
			if err := os.WriteFile(file, seats[k].lines.Bytes(), 0o600); err != nil {
				t.Fatal(err)
			}
			words = append(words, file)
		}
		said, err := exec.Command(judge, words...).CombinedOutput()
		if err != nil {
			t.Fatal(err, string(said))
		}
		for _, line := range []string{"fresh", "once", "in order", "empty", "refused never got", "full"} {
			if !bytes.Contains(said, []byte(line+" holds\n")) {
				t.Fatalf("%s", said)
			}
		}
	}
}
