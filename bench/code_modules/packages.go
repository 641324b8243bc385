// A program for bench/code_modules.sh that reaches large packages of the library.
package main

import (
	"archive/zip"
	"encoding/gob"
	"encoding/json"
	"encoding/xml"
	"fmt"
	"go/format"
	"go/parser"
	"go/token"
	"html/template"
	"image/png"
	"io"
	"math/big"
	"net/http"
	"os"
	"regexp"
)

type page struct {
	Name  string
	Size  *big.Int
	Links map[string][]page
}

func serve(w http.ResponseWriter, r *http.Request) {
	var it page
	if err := json.NewDecoder(r.Body).Decode(&it); err != nil {
		http.Error(w, err.Error(), http.StatusBadRequest)
		return
	}
	_ = xml.NewEncoder(w).Encode(it)
	_ = gob.NewEncoder(w).Encode(it)
	_ = template.Must(template.New("page").Parse(r.FormValue("text"))).Execute(w, it)
	if image, err := png.Decode(r.Body); err == nil {
		fmt.Fprintln(w, image.Bounds(), regexp.MustCompile(it.Name).FindAllString(it.Name, 9))
	}
}

func main() {
	if file, err := parser.ParseFile(token.NewFileSet(), os.Args[0], nil, parser.ParseComments); err == nil {
		_ = format.Node(os.Stdout, token.NewFileSet(), file)
	}
	if files, err := zip.OpenReader(os.Args[0]); err == nil {
		fmt.Println(len(files.File))
	}
	if answer, err := http.Get(os.Args[0]); err == nil {
		_, _ = io.Copy(os.Stdout, answer.Body)
	}
	fmt.Println(http.ListenAndServe(":8080", http.HandlerFunc(serve)))
}
