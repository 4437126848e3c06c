// A clone over go-git: gogit_clone ADDRESS FOLDER.
package main

import (
	"fmt"
	"os"

	git "github.com/go-git/go-git/v5"
)

func main() {
	if _, err := git.PlainClone(os.Args[2], false, &git.CloneOptions{URL: os.Args[1]}); err != nil {
		fmt.Println(err)
		os.Exit(1)
	}
}
