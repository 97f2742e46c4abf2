// A token by Google's own library for Go from a file of credentials (external_account). The library takes no token_url but Google's, so the
// transport that it is given sends what is meant for Google to BASE.
//
// usage: external BASE CREDENTIALS
package main

import (
	"context"
	"fmt"
	"net/http"
	"net/url"
	"os"

	"golang.org/x/oauth2"
	"golang.org/x/oauth2/google"
)

type elsewhere struct{ base *url.URL }

func (other elsewhere) RoundTrip(request *http.Request) (*http.Response, error) {
	moved := request.Clone(request.Context())
	moved.URL.Scheme, moved.URL.Host = other.base.Scheme, other.base.Host
	return http.DefaultTransport.RoundTrip(moved)
}

func main() {
	base, err := url.Parse(os.Args[1])
	if err == nil {
		var text []byte
		if text, err = os.ReadFile(os.Args[2]); err == nil {
			ctx := context.WithValue(context.Background(), oauth2.HTTPClient, &http.Client{Transport: elsewhere{base}})
			var found *google.Credentials
			if found, err = google.CredentialsFromJSON(ctx, text, "https://www.googleapis.com/auth/cloud-platform"); err == nil {
				var token *oauth2.Token
				if token, err = found.TokenSource.Token(); err == nil {
					fmt.Println("token", token.AccessToken, token.Expiry.Unix())
					return
				}
			}
		}
	}
	fmt.Println("error", err)
}
