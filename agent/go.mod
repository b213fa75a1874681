module kitchenrue.example/agent

go 1.19
