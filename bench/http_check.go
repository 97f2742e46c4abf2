// The yardstick of http.sh for a check: Go's net/http, which looks at the bearer, the token's HS256 signature, its end, its scope and the
// group that a binding names. It ends behind so many connections.
package main

import (
	"bytes"
	"crypto/hmac"
	"crypto/sha256"
	"encoding/base64"
	"encoding/json"
	"io"
	"log"
	"net"
	"net/http"
	"os"
	"strconv"
	"strings"
	"time"
)

type check struct {
	Token      string `json:"token"`
	Permission string `json:"permission"`
	Resource   string `json:"resource"`
}

type payload struct {
	Issuer string `json:"iss"`
	Exp    int64  `json:"exp"`
	Scope  string `json:"scope"`
	Wif    struct {
		Who struct {
			Pool   string   `json:"pool"`
			Groups []string `json:"groups"`
		} `json:"who"`
	} `json:"wif"`
}

type gate struct {
	issuer, secret string
	key            []byte
}

var head = []byte(`{"alg":"HS256","typ":"JWT"}`)

func (g *gate) payloadOf(token string) (*payload, bool) {
	parts := strings.Split(token, ".")
	if len(parts) != 3 {
		return nil, false
	}
	mac := hmac.New(sha256.New, g.key)
	io.WriteString(mac, parts[0]+"."+parts[1])
	sent, err := base64.RawURLEncoding.DecodeString(parts[2])
	header, headerErr := base64.RawURLEncoding.DecodeString(parts[0])
	body, bodyErr := base64.RawURLEncoding.DecodeString(parts[1])
	if err != nil || headerErr != nil || bodyErr != nil || !hmac.Equal(sent, mac.Sum(nil)) || !bytes.Equal(header, head) {
		return nil, false
	}
	found := new(payload)
	return found, json.Unmarshal(body, found) == nil
}

func (g *gate) admits(asked *check, now int64) bool {
	found, ok := g.payloadOf(asked.Token)
	return ok && found.Issuer == g.issuer && now < found.Exp && strings.HasSuffix(found.Scope, "/auth/cloud-platform") &&
		asked.Permission == "storage.objects.get" && strings.HasPrefix(asked.Resource, "//storage.googleapis.com/projects/_/buckets/artifacts/") &&
		found.Wif.Who.Pool == "1234/ci-pool" && isIn(found.Wif.Who.Groups, "builders")
}

func isIn(names []string, wanted string) bool {
	for _, name := range names {
		if name == wanted {
			return true
		}
	}
	return false
}

func (g *gate) ServeHTTP(reply http.ResponseWriter, request *http.Request) {
	asked := new(check)
	body, err := io.ReadAll(http.MaxBytesReader(reply, request.Body, 65536))
	if err != nil || json.Unmarshal(body, asked) != nil || request.Header.Get("Authorization") != "Bearer "+g.secret {
		reply.WriteHeader(http.StatusBadRequest)
		return
	}
	reply.Header().Set("Content-Type", "application/json")
	reply.Header().Set("Cache-Control", "no-store")
	if !g.admits(asked, time.Now().Unix()) {
		reply.WriteHeader(http.StatusForbidden)
		return
	}
	io.WriteString(reply, `{"allowed":true}`)
}

func main() {
	text, err := os.ReadFile(os.Args[1])
	if err != nil {
		log.Fatal(err)
	}
	var config struct{ Issuer, Key, Gate string }
	if err := json.Unmarshal(text, &config); err != nil {
		log.Fatal(err)
	}
	key, err := base64.RawURLEncoding.DecodeString(config.Key)
	left, countErr := strconv.Atoi(os.Args[3])
	if err != nil || countErr != nil {
		log.Fatal("the key or the count has no form")
	}
	closed := make(chan bool)
	server := http.Server{Addr: "127.0.0.1:" + os.Args[2], Handler: &gate{config.Issuer, config.Gate, key}, ConnState: func(_ net.Conn, state http.ConnState) {
		if state == http.StateClosed {
			closed <- true
		}
	}}
	go func() { log.Fatal(server.ListenAndServe()) }()
	for ; left > 0; left-- {
		<-closed
	}
}
