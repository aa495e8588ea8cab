# Orders from February on, with their month and their amount with tax.
library(dplyr)
library(lubridate)
recent <- orders |>
  filter(day >= as.Date("2024-02-01"), !is.na(amount))
recent |>
  mutate(month = month(day), gross = amount * 1.2) |>
  select(id, cust, month, gross)
