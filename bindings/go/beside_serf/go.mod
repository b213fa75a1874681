module kitchenrue.example/beside_serf

go 1.19

require (
	github.com/hashicorp/memberlist v0.2.2
	github.com/hashicorp/serf v0.9.4
	kitchenrue.example/serf v0.0.0
)

replace (
	kitchenrue.example/serf => ../serf
	kitchenrue.example/serfagent => ../serfagent
)
