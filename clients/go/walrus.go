// Package walrus names blobs and checks what a gateway sends, without the program walrus and without trust in the
// gateway. The rules are those of docs/FORMATS.md, and of network/HTTP.md for the lists of long files.
package walrus

import (
	"bytes"
	"crypto/sha256"
	"encoding/binary"
	"encoding/hex"
	"fmt"
	"io"
	"math/bits"
	"net/http"
	"strings"
)

const LargestBlob, MostFaults, mark = 16_777_216, 333, "\x00walrus list \x00\x00\x01"

type Digest [32]byte

func (digest Digest) String() string { return hex.EncodeToString(digest[:]) }

// An Encoded blob: its identifier, its metadata without the kind, and by axis, 0 for primary, the roots and the slivers.
type Encoded struct {
	Identifier Digest
	Metadata   []byte
	Roots      [2][]Digest
	Slivers    [2][][]byte
}

// For each exponent the power of x, twice over, and for each word but 0 its exponent.
var powers, exponents = func() (powers [131_070]uint16, exponents [65_536]int) {
	for exponent, word := 0, 1; exponent < 65_535; exponent++ {
		powers[exponent], powers[exponent+65_535], exponents[word] = uint16(word), uint16(word), exponent
		if word <<= 1; word > 0xffff {
			word ^= 0x1100b
		}
	}
	return
}()

// coefficient is the exponent of the word by which the symbol at a place, one of so many, counts in that at a point.
func coefficient(count, place, point int) (exponent int) {
	for other := 0; other < count; other++ {
		if other != place {
			exponent += exponents[point^other] + 65_535 - exponents[place^other]
		}
	}
	return exponent % 65_535
}

// addScaled adds a multiple of each word of a symbol to those of another one.
func addScaled(sum []byte, scale int, symbol []byte) {
	var first, second [256]uint16 // multiples by the bytes of a word
	for at := 1; at < 256; at++ {
		first[at], second[at] = powers[exponents[at<<8]+scale], powers[exponents[at]+scale]
	}
	for at := 0; at < len(sum); at += 2 {
		word := first[symbol[at]] ^ second[symbol[at+1]]
		sum[at], sum[at+1] = sum[at]^byte(word>>8), sum[at+1]^byte(word)
	}
}

// extend fills codewords, lists of symbols of which the first so many are there.
func extend(codewords [][][]byte, count int) {
	for point := count; point < len(codewords[0]); point++ {
		for place := 0; place < count; place++ {
			scale := coefficient(count, place, point)
			for _, codeword := range codewords {
				addScaled(codeword[point], scale, codeword[place])
			}
		}
	}
}

// matrix gives the rows and the columns of the extended matrix.
func matrix(blob []byte, faults int) (rows, columns [][][]byte) {
	width, shards := 2*faults+1, 3*faults+1
	cells := (faults + 1) * width
	size := 2 * (1 + (len(blob)-1)/(2*cells))
	padded, whole := make([]byte, cells*size), make([]byte, shards*shards*size)
	copy(padded, blob)
	rows, columns = make([][][]byte, shards), make([][][]byte, shards)
	for place := 0; place < shards*shards; place++ {
		row, column, symbol := place/shards, place%shards, whole[place*size:][:size]
		rows[row], columns[column] = append(rows[row], symbol), append(columns[column], symbol)
		if row <= faults && column < width {
			copy(symbol, padded[(row*width+column)*size:])
		}
	}
	extend(rows[:faults+1], width)
	extend(columns, faults+1)
	return
}

func digest(parts ...[]byte) Digest { return sha256.Sum256(bytes.Join(parts, nil)) }

func root(leaves [][]byte) Digest {
	level := make([]Digest, len(leaves))
	for at, leaf := range leaves {
		level[at] = digest([]byte{0}, leaf)
	}
	for ; len(level) > 1; level = level[:len(level)/2] {
		level = append(level, make([]Digest, len(level)%2)...)
		for at := 0; at < len(level)/2; at++ {
			level[at] = digest([]byte{1}, level[2*at][:], level[2*at+1][:])
		}
	}
	return level[0]
}

// LeadsTo says whether a path leads from a symbol, at a place among so many leaves, to a root: an opening then holds.
func LeadsTo(root Digest, symbol []byte, place, count int, path []Digest) bool {
	reached := digest([]byte{0}, symbol)
	for height, sibling := range path {
		pair, side := [][]byte{reached[:], sibling[:]}, place>>height&1
		reached = digest([]byte{1}, pair[side], pair[1-side])
	}
	return reached == root && 0 <= place && place < count && len(path) == bits.Len(uint(count-1))
}

// Encode makes all of a blob in a format, 1 or 2.
func Encode(blob []byte, faults, format int) (*Encoded, error) {
	if faults < 1 || faults > MostFaults || format < 1 || format > 2 || len(blob) > LargestBlob {
		return nil, fmt.Errorf("f is 1 to %d, a format 1 or 2, and a blob has at most %d bytes", MostFaults, LargestBlob)
	}
	rows, columns := matrix(blob, faults)
	made, pairs := &Encoded{}, [][]byte{}
	for at, row := range rows {
		made.Roots[0], made.Roots[1] = append(made.Roots[0], root(row)), append(made.Roots[1], root(columns[at]))
		made.Slivers[0] = append(made.Slivers[0], bytes.Join(row[:2*faults+1], nil))
		made.Slivers[1] = append(made.Slivers[1], bytes.Join(columns[at][:faults+1], nil))
	}
	for shard := range rows {
		held := []int{shard, len(rows) - 1 - shard}[format-1]
		pairs = append(pairs, append(made.Roots[0][shard][:], made.Roots[1][held][:]...))
	}
	head := binary.BigEndian.AppendUint16([]byte{2}[:format-1], uint16(faults))
	head = binary.BigEndian.AppendUint64(head, uint64(len(blob)))
	top := root(pairs)
	made.Metadata = bytes.Join(append([][]byte{head}, pairs...), nil)
	made.Identifier = digest([]byte{byte(format + 1)}, head, top[:])
	return made, nil
}

// List is the blob that lists a file of this length by the identifiers of its pieces.
func List(length int, names []byte) []byte {
	return append(binary.BigEndian.AppendUint64([]byte(mark), uint64(length)), names...)
}

// IsList says whether a gateway takes a blob for a list: it then names a file, and is none.
func IsList(blob []byte) bool {
	var head [24]byte
	copy(head[:], blob)
	length, size := binary.BigEndian.Uint64(head[16:]), uint64(len(blob))
	return bytes.HasPrefix(blob, []byte(mark)) && 0 < length && length <= 1<<43 && size == 24+32*(1+(length-1)/LargestBlob)
}

// Names are those that a file of any length may have, first the one that a gateway gives it.
func Names(file []byte, faults, format int) (names []Digest, err error) {
	var pieces []byte
	for rest := bytes.NewBuffer(file); pieces == nil || rest.Len() > 0; {
		made, err := Encode(rest.Next(LargestBlob), faults, format)
		if err != nil {
			return nil, err
		}
		pieces = append(pieces, made.Identifier[:]...)
	}
	if len(pieces) == 32 && !IsList(file) {
		names = append(names, *(*Digest)(pieces))
	}
	listed, err := Encode(List(len(file), pieces), faults, format)
	if err == nil && bytes.HasPrefix(file, []byte(mark)) {
		return append([]Digest{listed.Identifier}, names...), nil
	} else if err == nil && len(file) > 0 {
		names = append(names, listed.Identifier)
	}
	return names, err
}

// Fetch gets a file of at most so many bytes, in the client's time. No byte is given out before the whole has this name.
func Fetch(client *http.Client, gateway, name string, faults, format int, most int64) ([]byte, error) {
	reply, err := client.Get(gateway + "/v1/blobs/" + name)
	if err != nil {
		return nil, err
	}
	defer reply.Body.Close()
	file, err := io.ReadAll(io.LimitReader(reply.Body, most+1))
	if err != nil || reply.StatusCode != http.StatusOK || int64(len(file)) > most {
		return nil, fmt.Errorf("%s: %s, more than %d bytes, or %v: %.200q", name, reply.Status, most, err, file)
	}
	names, err := Names(file, faults, format)
	for _, found := range names {
		if err == nil && found.String() == strings.ToLower(name) {
			return file, nil
		}
	}
	return nil, fmt.Errorf("%s sent bytes that %s does not name for f = %d (%v): ask another gateway", gateway, name, faults, err)
}
