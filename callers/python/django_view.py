"""A view of Django REST framework that takes a valid body, and answers 422 or 400 with problem details of any other."""
from django.http import HttpRequest, HttpResponse
from rest_framework.views import APIView

import order_check


class View(APIView):
    def post(self, request: HttpRequest) -> HttpResponse:
        try:
            self.take(order_check.load(request.body, most=20))
        except (order_check.Invalid, order_check.NotJson) as error:
            return HttpResponse(error.details, "application/problem+json", error.http_status)
        return HttpResponse(status=204)

    def take(self, value: dict[str, object]) -> None:
        """Does something with a value that is valid."""
        print(value)
