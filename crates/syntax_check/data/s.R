library(dplyr)
recent <- orders |>
  filter(day >= as.Date("2024-02-01"))
recent |>
  group_by(region) |>
  summarise(n = n(), total = sum(amount)) |>
  arrange(desc(total)) |> head(10)
