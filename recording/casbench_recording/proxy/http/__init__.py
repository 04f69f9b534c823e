"""The connections of the proxy, to clients and to the cluster, and the exchanges of requests and answers on
them."""
