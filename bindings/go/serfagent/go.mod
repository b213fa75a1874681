module kitchenrue.example/serfagent

go 1.19
