module kitchenrue.example/programs

go 1.19

require kitchenrue.example/serfagent v0.0.0

replace kitchenrue.example/serfagent => ./serfagent
