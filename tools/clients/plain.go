// The calls of tools/http_clients.py by Go's net/http and by golang.org/x/oauth2 (package clientcredentials).
//
// usage: plain net|oauth2 BASE GATE GOOD BAD, the last two being files with the forms of exchanges
package main

import (
	"context"
	"encoding/json"
	"errors"
	"fmt"
	"io"
	"net/http"
	"net/url"
	"os"
	"strings"

	"golang.org/x/oauth2"
	"golang.org/x/oauth2/clientcredentials"
)

type reply struct {
	Token  string `json:"access_token"`
	Active bool   `json:"active"`
	Code   string `json:"error_description"`
}

func fail(err error) {
	if err != nil {
		fmt.Fprintln(os.Stderr, err)
		os.Exit(1)
	}
}

func form(path string) string {
	text, err := os.ReadFile(path)
	fail(err)
	return string(text)
}

func post(address, bearer, body string) (int, reply) {
	request, err := http.NewRequest("POST", address, strings.NewReader(body))
	fail(err)
	request.Header.Set("Content-Type", "application/x-www-form-urlencoded")
	if bearer != "" {
		request.Header.Set("Authorization", "Bearer "+bearer)
	}
	answer, err := http.DefaultClient.Do(request)
	fail(err)
	defer answer.Body.Close()
	text, err := io.ReadAll(answer.Body)
	fail(err)
	var said reply
	fail(json.Unmarshal(text, &said))
	return answer.StatusCode, said
}

func exchanged(address, body string) (*oauth2.Token, error) {
	parameters, err := url.ParseQuery(body)
	fail(err)
	config := clientcredentials.Config{TokenURL: address, AuthStyle: oauth2.AuthStyleInParams, EndpointParams: parameters}
	return config.Token(context.Background())
}

func main() {
	kind, base, gate, good, bad := os.Args[1], os.Args[2], os.Args[3], form(os.Args[4]), form(os.Args[5])
	token := ""
	if kind == "oauth2" {
		given, err := exchanged(base+"/v1/token", good)
		fail(err)
		token = given.AccessToken
		fmt.Println("exchange 200", token)
		_, err = exchanged(base+"/v1/token", bad)
		var refused *oauth2.RetrieveError
		if !errors.As(err, &refused) {
			fail(fmt.Errorf("no refusal: %v", err))
		}
		var said reply
		fail(json.Unmarshal(refused.Body, &said))
		fmt.Println("refused", refused.Response.StatusCode, said.Code)
	} else {
		status, said := post(base+"/v1/token", "", good)
		token = said.Token
		fmt.Println("exchange", status, token)
		status, said = post(base+"/v1/token", "", bad)
		fmt.Println("refused", status, said.Code)
	}
	for i := 0; i < 2; i++ {
		status, said := post(base+"/v1/introspect", gate, "token="+token)
		fmt.Println("introspect", status, said.Active)
	}
}
