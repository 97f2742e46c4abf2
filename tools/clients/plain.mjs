// The calls of tools/http_clients.py by the fetch of Node.js. It opens a connection a call and keeps each for 4 s, in which the service, with one
// connection at a time, would not come to the next: so it asks for a close.
//
// usage: node plain.mjs BASE GATE GOOD BAD
import { readFileSync } from 'node:fs'

const [base, gate, good, bad] = process.argv.slice(2)

async function post(path, bearer, body) {
  const headers = { Connection: 'close', 'Content-Type': 'application/x-www-form-urlencoded' }
  if (bearer) headers.Authorization = 'Bearer ' + bearer
  const answer = await fetch(base + path, { method: 'POST', headers, body })
  return [answer.status, await answer.json()]
}

const [status, given] = await post('/v1/token', null, readFileSync(good, 'utf8'))
console.log('exchange', status, given.access_token)
const [refused, said] = await post('/v1/token', null, readFileSync(bad, 'utf8'))
console.log('refused', refused, said.error_description)
for (let i = 0; i < 2; i++) {
  const [number, told] = await post('/v1/introspect', gate, new URLSearchParams({ token: given.access_token }))
  console.log('introspect', number, told.active)
}
