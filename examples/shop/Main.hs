module Main where

import Shop.Stock
import Shop.Till

data Shop = Shop Stock Till
