deliveries |> filter(delay_minutes > 30) |> select(delivery_id, depot, delay_minutes)
