// peers.go check CORPUS OUT | speed FOLDER INPUT: Go's crypto/x509 for keys and PKCS #8, and encoding/asn1 for parameters,
// with the types below. crypto/x509 has such types of its own for PSS, but doesn't export them. Output as of harness/.
package main

import (
	"crypto/rsa"
	"crypto/x509"
	"crypto/x509/pkix"
	"encoding/asn1"
	"fmt"
	"os"
)

type maskGen struct {
	Algorithm  asn1.ObjectIdentifier
	Parameters pkix.AlgorithmIdentifier `asn1:"optional"`
}
type pssParams struct {
	Hash    pkix.AlgorithmIdentifier `asn1:"optional,explicit,tag:0"`
	MaskGen maskGen                  `asn1:"optional,explicit,tag:1"`
	Salt    int                      `asn1:"optional,explicit,tag:2,default:20"`
	Trailer int                      `asn1:"optional,explicit,tag:3,default:1"`
}
type oaepParams struct {
	Hash    pkix.AlgorithmIdentifier `asn1:"optional,explicit,tag:0"`
	MaskGen maskGen                  `asn1:"optional,explicit,tag:1"`
	Source  pkix.AlgorithmIdentifier `asn1:"optional,explicit,tag:2"`
}
type inAlgorithm[P any] struct {
	Algorithm  asn1.ObjectIdentifier
	Parameters P
}

var oidPSS = asn1.ObjectIdentifier{1, 2, 840, 113549, 1, 1, 10}
var oidOAEP = asn1.ObjectIdentifier{1, 2, 840, 113549, 1, 1, 7}

// A call tells whether the input is accepted and, if asked to write, what is written (nil: nothing).
type call func(der []byte, write bool) (bool, []byte)

func isPSS(value *pssParams) bool {
	return value.Trailer == 1 && value.Salt >= 0
}

func isOAEP(*oaepParams) bool {
	return true
}

func isWhole(der []byte, value interface{}) bool {
	rest, err := asn1.Unmarshal(der, value)
	return err == nil && len(rest) == 0
}

func marshal(value interface{}, write bool) []byte {
	if !write {
		return nil
	}
	made, err := asn1.Marshal(value)
	if err != nil {
		return nil
	}
	return made
}

func key[K any](parse func([]byte) (*K, error), marshal func(*K) []byte) call {
	return func(der []byte, write bool) (bool, []byte) {
		key, err := parse(der)
		if err != nil || !write {
			return err == nil, nil
		}
		return true, marshal(key)
	}
}

func alone[P any](isValid func(*P) bool) call {
	return func(der []byte, write bool) (bool, []byte) {
		var value P
		if !isWhole(der, &value) || !isValid(&value) {
			return false, nil
		}
		return true, marshal(value, write)
	}
}

func under[P any](oid asn1.ObjectIdentifier, isValid func(*P) bool) call {
	return alone(func(value *inAlgorithm[P]) bool {
		return value.Algorithm.Equal(oid) && isValid(&value.Parameters)
	})
}

func pkcs8(der []byte, write bool) (bool, []byte) {
	parsed, err := x509.ParsePKCS8PrivateKey(der)
	if err != nil {
		return false, nil
	}
	key, isRSA := parsed.(*rsa.PrivateKey)
	if !isRSA || !write {
		return isRSA, nil
	}
	made, err := x509.MarshalPKCS8PrivateKey(key)
	if err != nil {
		return true, nil
	}
	return true, made
}

var privateKey = key(x509.ParsePKCS1PrivateKey, x509.MarshalPKCS1PrivateKey)
var calls = []call{key(x509.ParsePKCS1PublicKey, x509.MarshalPKCS1PublicKey), privateKey, privateKey,
	alone(isPSS), under(oidPSS, isPSS), alone(isOAEP), under(oidOAEP, isOAEP), pkcs8}

func main() {
	switch {
	case len(os.Args) == 4 && os.Args[1] == "check":
		check(os.Args[2], os.Args[3])
	case len(os.Args) == 4 && os.Args[1] == "speed":
		speed(os.Args[2], os.Args[3])
	default:
		fmt.Fprintln(os.Stderr, "peers.go check CORPUS OUT | speed FOLDER INPUT")
		os.Exit(2)
	}
}
