module kitchenrue.example/serf

go 1.19

require (
	github.com/armon/go-metrics v0.0.0-20180917152333-f0300d1749da
	github.com/hashicorp/go-msgpack v0.5.5
	github.com/hashicorp/memberlist v0.2.2
	github.com/hashicorp/serf v0.9.4
	kitchenrue.example/guard v0.0.0
	kitchenrue.example/serfagent v0.0.0
)

replace kitchenrue.example/guard => ../guard

replace kitchenrue.example/serfagent => ../serfagent
