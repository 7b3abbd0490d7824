package walrus

import (
	"bytes"
	"crypto/sha256"
	"encoding/hex"
	"encoding/json"
	"fmt"
	"net/http"
	"net/http/httptest"
	"os"
	"strings"
	"testing"
	"time"
)

type input struct {
	Hex, Generator string
	Length         int
}

type format struct{ Identifier, Metadata, Encoded, List string }

type vector struct {
	Input    input
	Faults   int
	Formats  map[string]format
	Slivers  struct{ Primary, Secondary []string }
	Openings []struct {
		Axis, Index, Cross int
		Symbol             *string
		Path               []string
	}
}

var vectors = func() (all struct{ Blobs, Lists []vector }) {
	text, err := os.ReadFile("../vectors.json")
	if err == nil {
		err = json.Unmarshal(text, &all)
	}
	if err != nil {
		panic(err)
	}
	return
}()

func decoded(t *testing.T, digits string) []byte {
	found, err := hex.DecodeString(digits)
	if err != nil {
		t.Fatal(err)
	}
	return found
}

func made(t *testing.T, told input) []byte {
	if told.Generator == "" {
		return decoded(t, told.Hex)
	}
	found := make([]byte, told.Length)
	for at := range found {
		if told.Generator == "counting" {
			found[at] = byte(at % 251)
		}
	}
	return found
}

func same(t *testing.T, what, found, wanted string) {
	t.Helper()
	if found != wanted {
		t.Errorf("%s: %s came, and not %s", what, found, wanted)
	}
}

func hashed(parts ...[]byte) string {
	return fmt.Sprintf("%x", sha256.Sum256(bytes.Join(parts, nil)))
}

func TestBlobs(t *testing.T) {
	if len(vectors.Blobs) < 50 {
		t.Fatal("these are not all vectors")
	}
	for _, it := range vectors.Blobs {
		it := it
		t.Run(fmt.Sprintf("f=%d,length=%d%s", it.Faults, it.Input.Length, it.Input.Hex), func(t *testing.T) {
			blob := made(t, it.Input)
			for number, kind := range map[int]byte{1: 0x10, 2: 0x14} {
				if number == 2 && len(blob) > 1<<20 {
					continue // the matrix is the same
				}
				encoded, err := Encode(blob, it.Faults, number)
				if err != nil {
					t.Fatal(err)
				}
				wanted := it.Formats[fmt.Sprint(number)]
				same(t, "identifier", encoded.Identifier.String(), wanted.Identifier)
				same(t, "metadata", hashed([]byte{kind}, encoded.Metadata), wanted.Metadata)
				for at := range it.Slivers.Primary {
					same(t, "primary sliver", hashed(encoded.Slivers[0][at]), it.Slivers.Primary[at])
					same(t, "secondary sliver", hashed(encoded.Slivers[1][at]), it.Slivers.Secondary[at])
				}
				checkOpenings(t, it, encoded)
			}
		})
	}
}

func checkOpenings(t *testing.T, it vector, encoded *Encoded) {
	count := 3*it.Faults + 1
	for _, opening := range it.Openings {
		if opening.Symbol == nil {
			continue
		}
		var path []Digest
		for _, digits := range opening.Path {
			path = append(path, *(*Digest)(decoded(t, digits)))
		}
		symbol, root := decoded(t, *opening.Symbol), encoded.Roots[1-opening.Axis][opening.Cross]
		if !LeadsTo(root, symbol, opening.Index, count, path) {
			t.Error("an opening does not hold")
		}
		isAlike := digest([]byte{0}, symbol) == path[0] // then both places have the same path
		if LeadsTo(root, symbol, opening.Index^1, count, path) != (isAlike && opening.Index^1 < count) {
			t.Error("an opening holds at another place, or does not")
		}
		if LeadsTo(root, symbol, opening.Index, count, path[1:]) {
			t.Error("an opening holds with a shorter path")
		}
		symbol[0] ^= 1
		if LeadsTo(root, symbol, opening.Index, count, path) {
			t.Error("an opening of another symbol holds")
		}
	}
}

func TestLists(t *testing.T) {
	for _, it := range vectors.Lists {
		file, wanted := made(t, it.Input), it.Formats["1"]
		names, err := Names(file, it.Faults, 1)
		if err != nil {
			t.Fatal(err)
		}
		same(t, "name", names[0].String(), wanted.Identifier)
		list := decoded(t, wanted.List)
		same(t, "list", hex.EncodeToString(List(len(file), list[24:])), wanted.List)
		if !IsList(list) || IsList(file) || IsList(list[:len(list)-1]) {
			t.Error("a list is one, and nothing else is")
		}
	}
}

func TestWordsThatAreNone(t *testing.T) {
	for _, it := range []struct{ size, faults, format int }{{1, 0, 1}, {1, 334, 1}, {1, 1, 0}, {1, 1, 3}, {LargestBlob + 1, 1, 1}} {
		if made, err := Encode(make([]byte, it.size), it.faults, it.format); err == nil {
			t.Errorf("%v gives %v", it, made.Identifier)
		}
	}
}

// fetched asks a gateway that sends these bodies by name for one of them.
func fetched(bodies map[string][]byte, name string, faults int, most int64) ([]byte, error) {
	server := httptest.NewServer(http.HandlerFunc(func(reply http.ResponseWriter, request *http.Request) {
		body, found := bodies[strings.TrimPrefix(request.URL.Path, "/v1/blobs/")]
		if !found {
			reply.WriteHeader(404)
		}
		reply.Write(body)
	}))
	defer server.Close()
	return Fetch(&http.Client{Timeout: time.Minute}, server.URL, name, faults, 1, most)
}

func TestFetching(t *testing.T) {
	file := []byte("walrus")
	encoded, _ := Encode(file, 1, 1)
	empty, _ := Encode(nil, 1, 1)
	name, none := encoded.Identifier.String(), empty.Identifier.String()
	honest, lying := map[string][]byte{name: file, none: nil}, map[string][]byte{name: []byte("walrut"), none: {0}}
	for _, wanted := range []struct {
		bodies map[string][]byte
		name   string
		faults int
		most   int64
		fault  string
	}{
		{honest, name, 1, 6, ""}, {honest, none, 1, 0, ""}, {honest, strings.ToUpper(name), 1, 6, "404"},
		{honest, name, 2, 6, "does not name"}, {honest, name, 1, 5, "more than 5 bytes"}, {honest, name[:62] + "00", 1, 6, "404"},
		{lying, name, 1, 6, "does not name"}, {lying, none, 1, 6, "does not name"},
	} {
		found, err := fetched(wanted.bodies, wanted.name, wanted.faults, wanted.most)
		if wanted.fault == "" && (err != nil || !bytes.Equal(found, wanted.bodies[wanted.name])) {
			t.Errorf("%v: %v", wanted, err)
		}
		if wanted.fault != "" && (err == nil || !strings.Contains(err.Error(), wanted.fault)) {
			t.Errorf("%v: the fault is %v", wanted, err)
		}
	}
}

func TestFetchingWhatAListNames(t *testing.T) {
	for _, it := range vectors.Lists {
		file, wanted := made(t, it.Input), it.Formats["1"]
		found, err := fetched(map[string][]byte{wanted.Identifier: file}, wanted.Identifier, it.Faults, 1<<30)
		if err != nil || !bytes.Equal(found, file) {
			t.Errorf("a file that a list names: %v", err)
		}
		list := map[string][]byte{wanted.Identifier: decoded(t, wanted.List)}
		if _, err := fetched(list, wanted.Identifier, it.Faults, 1<<30); err == nil {
			t.Error("a list is taken for the file that it names")
		}
	}
}
