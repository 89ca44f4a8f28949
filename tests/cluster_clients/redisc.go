// Counts with redisc (Debian's package golang-github-mna-redisc-dev): see redis_py.py, which does the same.
// usage: go run redisc.go PORT SECONDS
package main

import (
	"fmt"
	"os"
	"strconv"
	"time"

	"github.com/gomodule/redigo/redis"
	"github.com/mna/redisc"
)

func keys() []string {
	var names []string
	for number := 0; number < 100; number++ {
		names = append(names, fmt.Sprintf("count:%d", number), fmt.Sprintf("{counts}:%d", number))
	}
	return names
}

// The cluster, once it answers.
func cluster(port string) *redisc.Cluster {
	client := &redisc.Cluster{StartupNodes: []string{"127.0.0.1:" + port}}
	for client.Refresh() != nil {
		time.Sleep(2 * time.Millisecond)
	}
	return client
}

// The number that the command answers. Redirections are followed.
func asked(client *redisc.Cluster, command, key string) (int, error) {
	link := client.Get()
	defer link.Close()
	retrying, err := redisc.RetryConn(link, 16, 10*time.Millisecond)
	if err != nil {
		return 0, err
	}
	return redis.Int(retrying.Do(command, key))
}

func main() {
	seconds, err := strconv.ParseFloat(os.Args[2], 64)
	if err != nil {
		panic(err)
	}
	fmt.Println("ready")
	client := cluster(os.Args[1])
	rounds, wrong, held := 0, 0, 0
	for end := time.Now().Add(time.Duration(seconds * float64(time.Second))); time.Now().Before(end); {
		rounds++
		for _, key := range keys() {
			if number, err := asked(client, "INCR", key); err != nil || number != rounds {
				wrong++
			}
		}
	}
	for _, key := range keys() {
		number, err := asked(client, "GET", key)
		if err != nil {
			panic(err)
		}
		held += number
	}
	fmt.Printf("%d rounds, %d wrong, %d held\n", rounds, wrong, held)
}
