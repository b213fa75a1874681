package guard_test

import (
	"fmt"
	"log"

	"github.com/hashicorp/memberlist"

	"kitchenrue.example/guard"
)

func ExampleNew() {
	config := memberlist.DefaultLANConfig()
	guarded, err := guard.New(config, guard.Defaults())
	if err != nil {
		panic(err)
	}
	config.Transport = guarded
	list, err := memberlist.Create(config)
	if err != nil {
		guarded.Shutdown()
		panic(err)
	}
	defer list.Shutdown()
	fmt.Println(guarded.Drops())
}

func ExampleAround() {
	config := memberlist.DefaultLANConfig()
	// A program would use its own transport here, such as one over TLS.
	own, err := memberlist.NewNetTransport(&memberlist.NetTransportConfig{BindAddrs: []string{"127.0.0.1"}, Logger: log.Default()})
	if err != nil {
		panic(err)
	}
	guarded, err := guard.Around(own, config, guard.Defaults())
	if err != nil {
		panic(err)
	}
	config.Transport = guarded
	list, err := memberlist.Create(config)
	if err != nil {
		own.Shutdown()
		panic(err)
	}
	defer list.Shutdown()
	fmt.Println(guarded.Drops())
}
