# Customers by region: an unknown region by that name, and who is new.
library(dplyr)
library(tidyr)
customers |>
  replace_na(list(region = "unknown")) |>
  mutate(new = if_else(since >= as.Date("2023-01-01"), "new", "known")) |>
  group_by(region) |>
  relocate(region) |>
  select(-since)
