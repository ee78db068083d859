-- What a shop sells.
module Shop.Item where

data Kind = Kind

data Item = Item Kind Price

data Price = Price
