module Shop.Till where

import Shop.Item
  -- a name that is spelled wrongly
data Till = Till Prize
