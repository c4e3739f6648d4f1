// For compare.py: what one writes in Go without a library. Prints 1 for each line of hexadecimal that it accepts, else 0.
package main

import (
	"bufio"
	"encoding/binary"
	"encoding/hex"
	"fmt"
	"os"
)

func accepts(data []byte) bool {
	_, n := binary.Uvarint(data)
	if n <= 0 {
		return false
	}
	data = data[n:]
	size, n := binary.Uvarint(data)
	return n > 0 && size == uint64(len(data)-n)
}

func main() {
	lines := bufio.NewScanner(os.Stdin)
	for lines.Scan() {
		data, err := hex.DecodeString(lines.Text())
		if err == nil && accepts(data) {
			fmt.Println(1)
		} else {
			fmt.Println(0)
		}
	}
}
