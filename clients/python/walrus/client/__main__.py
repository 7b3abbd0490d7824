"""The command python3 -m walrus.client."""
from walrus.files import main

main()
