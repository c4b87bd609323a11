s/            if (length == 0)/            if (length < BLOCK)/
