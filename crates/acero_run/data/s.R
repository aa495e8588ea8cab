t |> filter(x > 5)
