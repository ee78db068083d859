module Shop.Stock where

import Shop.Item

data Shelf = Shelf Item Item

data Stock = Stock Shelf Shelf
